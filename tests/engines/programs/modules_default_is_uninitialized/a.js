import { print } from "host";
import "./b.js";
export default "value";
print("a");
