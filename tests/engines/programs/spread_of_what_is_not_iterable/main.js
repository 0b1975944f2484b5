import { print } from "host";
try { print(...5); } catch (e) { print(e instanceof TypeError); }
try { [...undefined]; } catch (e) { print(e instanceof TypeError); }
try { print(...{}); } catch (e) { print(e instanceof TypeError); }
try { print(...{ [Symbol.iterator]: 1 }); } catch (e) { print(e instanceof TypeError); }
try { [...{ [Symbol.iterator]() { return 1; } }]; } catch (e) { print(e instanceof TypeError); }
try { [...{ [Symbol.iterator]() { return { next() { return 1; } }; } }]; } catch (e) { print(e instanceof TypeError); }
try { [...{ [Symbol.iterator]() { return {}; } }]; } catch (e) { print(e instanceof TypeError); }
