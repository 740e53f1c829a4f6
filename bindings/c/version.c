/* The version of the library: the text of the file VERSION, by which it is compiled. */
const char *squall_version(void);

const char *squall_version(void) {
    return SQUALL_VERSION;
}
