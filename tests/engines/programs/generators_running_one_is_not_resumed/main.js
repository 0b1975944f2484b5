import { print } from "host";
let o;
function* g() {
  try { o.next(); } catch (e) { print(e instanceof TypeError); }
  try { o.return(1); } catch (e) { print(e instanceof TypeError); }
  try { o.throw(1); } catch (e) { print(e instanceof TypeError); }
  yield 3;
  for (let x of [1]) { try { [...o]; } catch (e) { print(e instanceof TypeError); } }
}
o = g();
print(o.next().value, o.next().done);
