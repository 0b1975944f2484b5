let e = 1;
export default e + 1;
e = 5;
