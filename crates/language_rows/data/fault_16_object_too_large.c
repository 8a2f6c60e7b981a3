int small[65535];
int large[65536];
