const char *kind(void);
