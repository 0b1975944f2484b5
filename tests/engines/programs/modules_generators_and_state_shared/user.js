import * as ids from "./ids.js";
export const use = () => `${ids.next()}/${ids.current}`;
