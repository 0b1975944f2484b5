import { print } from "host";
print(1);print(2);   print(3); print(4);

	print(5); /* a
b */ print(6);
`
`; print(`
`.length, `ab`.charCodeAt(1));
// comment print(7);
