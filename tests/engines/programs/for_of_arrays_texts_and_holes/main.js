import { print } from "host";
for (let x of [1, , "a", null]) print(x);
for (let c of "a😀\ud800b") print(c, c.length);
for (let x of []) print("no");
for (let x of "") print("no");
