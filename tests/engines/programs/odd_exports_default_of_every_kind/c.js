export default class Named { static name2() { return typeof Named; } }
