import { print } from "host";
let f0 = x0 => {
  let f1 = x1 => {
    let f2 = x2 => {
      let f3 = x3 => {
        let f4 = x4 => {
          let f5 = x5 => {
            let f6 = x6 => {
              let f7 = x7 => {
                let f8 = x8 => {
                  let f9 = x9 => {
                    let f10 = x10 => {
                      let f11 = x11 => {
                        let f12 = x12 => {
                          let f13 = x13 => {
                            let f14 = x14 => {
                              let f15 = x15 => {
                                let f16 = x16 => {
                                  let f17 = x17 => {
                                    let f18 = x18 => {
                                      let f19 = x19 => {
                                        let f20 = x20 => {
                                          let f21 = x21 => {
                                            let f22 = x22 => {
                                              let f23 = x23 => {
                                                let f24 = x24 => {
                                                  let f25 = x25 => {
                                                    let f26 = x26 => {
                                                      let f27 = x27 => {
                                                        let f28 = x28 => {
                                                          let f29 = x29 => {
                                                            let f30 = x30 => {
                                                              let f31 = x31 => {
                                                                let f32 = x32 => {
                                                                  let f33 = x33 => {
                                                                    let f34 = x34 => {
                                                                      let f35 = x35 => {
                                                                        let f36 = x36 => {
                                                                          let f37 = x37 => {
                                                                            let f38 = x38 => {
                                                                              let f39 = x39 => {
                                                                                return [x0, x1, x2, x3, x4, x5, x6, x7, x8, x9, x10, x11, x12, x13, x14, x15, x16, x17, x18, x19, x20, x21, x22, x23, x24, x25, x26, x27, x28, x29, x30, x31, x32, x33, x34, x35, x36, x37, x38, x39].join("-");
                                                                              };
                                                                              return f39(x38 + 1);
                                                                            };
                                                                            return f38(x37 + 1);
                                                                          };
                                                                          return f37(x36 + 1);
                                                                        };
                                                                        return f36(x35 + 1);
                                                                      };
                                                                      return f35(x34 + 1);
                                                                    };
                                                                    return f34(x33 + 1);
                                                                  };
                                                                  return f33(x32 + 1);
                                                                };
                                                                return f32(x31 + 1);
                                                              };
                                                              return f31(x30 + 1);
                                                            };
                                                            return f30(x29 + 1);
                                                          };
                                                          return f29(x28 + 1);
                                                        };
                                                        return f28(x27 + 1);
                                                      };
                                                      return f27(x26 + 1);
                                                    };
                                                    return f26(x25 + 1);
                                                  };
                                                  return f25(x24 + 1);
                                                };
                                                return f24(x23 + 1);
                                              };
                                              return f23(x22 + 1);
                                            };
                                            return f22(x21 + 1);
                                          };
                                          return f21(x20 + 1);
                                        };
                                        return f20(x19 + 1);
                                      };
                                      return f19(x18 + 1);
                                    };
                                    return f18(x17 + 1);
                                  };
                                  return f17(x16 + 1);
                                };
                                return f16(x15 + 1);
                              };
                              return f15(x14 + 1);
                            };
                            return f14(x13 + 1);
                          };
                          return f13(x12 + 1);
                        };
                        return f12(x11 + 1);
                      };
                      return f11(x10 + 1);
                    };
                    return f10(x9 + 1);
                  };
                  return f9(x8 + 1);
                };
                return f8(x7 + 1);
              };
              return f7(x6 + 1);
            };
            return f6(x5 + 1);
          };
          return f5(x4 + 1);
        };
        return f4(x3 + 1);
      };
      return f3(x2 + 1);
    };
    return f2(x1 + 1);
  };
  return f1(x0 + 1);
};
print(f0(1));
