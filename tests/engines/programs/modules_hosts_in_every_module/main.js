import { print, read as ask } from "host";
import { twice } from "./a.js";
import * as b from "./b.js";
print(ask(), twice(ask()), b.say("x"));
