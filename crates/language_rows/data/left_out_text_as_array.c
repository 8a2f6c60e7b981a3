int s[3] = "ab";
