import { print } from "host";
let construct = 1, iter_start = 2, spread_list = 3, generator_make = 4, class_make = 5, power = 6, to_text = 7, templates = 8, includes_put = 9, rest_list = 10, frame = 11, value = 12, v = 13, t = 14, s = 15, r = 16, k = 17, x = 18;
class f { constructor(...own) { this.put = own; } *each() { for (const hide of this.put) yield `${hide}` + [...this.put].length ** 2; } }
print(...new f(construct, iter_start, class_make).each(), power + to_text + templates + includes_put + rest_list + frame + value + v + t + s + r + k + x + spread_list + generator_make);
function apply(call, arguments1) { return call(...arguments1); }
print(apply((a, b) => a + b, [1, 2]));
