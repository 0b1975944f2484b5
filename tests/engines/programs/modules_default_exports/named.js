export default class K { k() { return K === this.constructor; } }
