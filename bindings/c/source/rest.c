/* ---- Written by hand: the texts and the versions ---- */

size_t jcobs_strerror(unsigned int status, char *text, size_t text_size)
{
    /* The descriptions in the order of the statuses; the last description is for other numbers. Each row has room for the
     * longest description, so no pointers are needed. */
    static const char descriptions[][sizeof "the frame breaks off inside a block"] = {
        "done",
        "more bytes are needed",
        "the buffer is too small",
        "the frame breaks off inside a block",
        "there is no frame",
        "unknown status",
    };
    const char *description = descriptions[status <= JCOBS_EMPTY ? status : JCOBS_EMPTY + 1];
    size_t length = 0;

    while (description[length] != '\0') {
        if (length + 1 < text_size) {
            text[length] = description[length];
        }
        length++;
    }
    if (text_size > 0) {
        text[jcobs_min(length, text_size - 1)] = '\0';
    }
    return length;
}

unsigned int jcobs_version(void)
{
    return JCOBS_VERSION;
}

unsigned int jcobs_abi_1(void)
{
    return 1;
}
