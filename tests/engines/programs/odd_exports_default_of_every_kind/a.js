export default class extends (class { constructor() { this.a = "anonymous"; } }) { }
