void hello(const char *greeting, const char *version);
