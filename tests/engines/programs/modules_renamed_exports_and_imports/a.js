let one = 1, two = 2;
const three = () => 3;
export { one as a, two as b, two as c, one as default, two as class };
two = 20;
