import { print } from "host";
class A { constructor() { print("never"); } }
try { A(); } catch (e) { print(e instanceof TypeError); }
try { A.call({}); } catch (e) { print(e instanceof TypeError); }
try { A.apply(Object.create(A.prototype), []); } catch (e) { print(e instanceof TypeError); }
class B extends A {}
try { B(); } catch (e) { print(e instanceof TypeError); }
try { ({ B }).B(); } catch (e) { print(e instanceof TypeError); }
