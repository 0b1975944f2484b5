import { print } from "host";
import * as main from "./main.js";
print(main.early());
try { main.late; } catch (e) { print(e instanceof ReferenceError); }
print("late" in main);
export let done = "done";
