import { print } from "host";
import { Object as O, String } from "./names.js";
import { undefined as u } from "./names.js";
print(O, String, u, [1].length, `${1}`);
