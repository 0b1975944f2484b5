import { print } from "host";
let o = { get k() { return 1; } };
try { o.k = 2; } catch (e) { print(e instanceof TypeError); }
try { Object.create(o).k = 2; } catch (e) { print(e instanceof TypeError); }
print(delete o.k, o.k);
