import { print } from "host";
const k = 1;
try { k = print("right"); } catch (e) { print(e instanceof TypeError); }
try { k++; } catch (e) { print(e instanceof TypeError); }
try { k += print("again"); } catch (e) { print(e instanceof TypeError); }
try { [k] = [2]; } catch (e) { print(e instanceof TypeError); }
try { ({ k } = { k: 3 }); } catch (e) { print(e instanceof TypeError); }
try { for (k of [1]) ; } catch (e) { print(e instanceof TypeError); }
print(k);
