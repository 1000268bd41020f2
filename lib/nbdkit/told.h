/* What nbdkit's log says of blocks that weren't checked or made, or of the first that differs. */
static inline void tell(uint32_t status, const struct dixpi_found *found, uint64_t first) {
    if (status != DIXPI_DIFFERS) {
        nbdkit_error("blocks from %" PRIu64 " on: status %" PRIu32 " of libdixpi", first, status);
        return;
    }
    const char *check = found->check == DIXPI_CHECK_GUARD ? "guard"
                        : found->check == DIXPI_CHECK_APP ? "application tag"
                                                          : "reference tag";
    int digits = found->check == DIXPI_CHECK_REF ? 8 : 4;
    nbdkit_error("block %" PRIu64 ": %s wanted %0*" PRIx32 ", has %0*" PRIx32, first + found->block, check, digits,
                 found->expected, digits, found->actual);
}
