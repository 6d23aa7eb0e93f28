/*
 * SPDX-FileCopyrightText: 2026 The etherparse_transport developers
 * SPDX-License-Identifier: MIT OR Apache-2.0
 */
#include <etherparse_transport.h>
#include <vector>

/* What a C++ program passes: the data of an empty vector, which may be null, and no error. */
static etherparse_status test(bool is_tested, const std::vector<uint8_t> &bytes)
{
    return is_tested ? etherparse_icmpv4_checksum_test(bytes.data(), bytes.size(), nullptr) : ETHERPARSE_OK;
}

int main()
{
    /* A result that is ignored on purpose. */
    (void)(etherparse_icmpv4_checksum_test(nullptr, 0, ETHERPARSE_NO_ERROR) == ETHERPARSE_OK);
    return test(true, {}) == ETHERPARSE_STATUS_LENGTH && test(false, {}) == ETHERPARSE_OK ? 0 : 1;
}
