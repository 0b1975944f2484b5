import { print } from "host";
print("abc".length, "abc"[1], "abc".charAt(2), (5).toString(), true.toString(), 7["toString"](), "abc"[3]);
try { "abc".length = 1; } catch (e) { print(e instanceof TypeError); }
try { "abc"[0] = "x"; } catch (e) { print(e instanceof TypeError); }
try { (5).x = 1; } catch (e) { print(e instanceof TypeError); }
try { null.x; } catch (e) { print(e instanceof TypeError); }
try { undefined[0]; } catch (e) { print(e instanceof TypeError); }
print((5).x, "t".x, true.x);
