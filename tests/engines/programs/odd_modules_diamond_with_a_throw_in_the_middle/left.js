import { print } from "host";
import { n, up } from "./base.js";
up(); print("left", n);
