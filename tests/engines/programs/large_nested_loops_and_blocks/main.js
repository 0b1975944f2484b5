import { print } from "host";
let n = 0, fs = [];
for (let i0 = 0; i0 < 1; i0++) {
l1: {
try {
for (let i3 = 0; i3 < 1; i3++) {
l4: {
try {
for (let i6 = 0; i6 < 1; i6++) {
l7: {
try {
for (let i9 = 0; i9 < 1; i9++) {
l10: {
try {
for (let i12 = 0; i12 < 1; i12++) {
l13: {
try {
for (let i15 = 0; i15 < 1; i15++) {
l16: {
try {
for (let i18 = 0; i18 < 1; i18++) {
l19: {
try {
for (let i21 = 0; i21 < 1; i21++) {
l22: {
try {
for (let i24 = 0; i24 < 1; i24++) {
l25: {
try {
for (let i27 = 0; i27 < 1; i27++) {
l28: {
try {
fs.push(() => i0 + i27 + ++n);
break l1;
} finally { n++; }
}
}
} finally { n++; }
}
}
} finally { n++; }
}
}
} finally { n++; }
}
}
} finally { n++; }
}
}
} finally { n++; }
}
}
} finally { n++; }
}
}
} finally { n++; }
}
}
} finally { n++; }
}
}
} finally { n++; }
}
}
print(n, fs[0](), n);
