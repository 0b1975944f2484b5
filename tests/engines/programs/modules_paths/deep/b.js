import * as top from "../main2.js";
import { n } from "../deep/er/c.js";
export function up() { return top.t + n; }
