import { print } from "host";
let s = "😀😀"; print(s.length); /* 😀 */ print("é", "\u{1F600}"); let 𝒳 = 1; print(𝒳); `😀${print(2)}😀${print(3)}`;
