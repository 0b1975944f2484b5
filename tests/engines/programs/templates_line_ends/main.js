import { print } from "host";
print(`a
b`.length, `\
`.length, `
`.charCodeAt(0));
