void bye(void);
