import {print} from "host";
print(1+2);
