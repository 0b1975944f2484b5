import { print } from "host";
print(" !#$%&'()*+,-./09:;<=>?@AZ[]^_`az{|}~", "--> <!-- // /* */", "let x = 1;");
