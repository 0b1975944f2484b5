import { print } from "host";
import { early } from "./g.js";
export default function () { return "default"; }
print("f", early);
