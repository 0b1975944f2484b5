export default (() => 41)();
