import { print } from "host";
let count = 1; let Date = "day"; const undefined = 2; let read = count + Date; let $ = 5; let a$ = 6; let a = 7;
print(count, Date, undefined, read, $, a$, a);
