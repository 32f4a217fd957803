"""The payload types of RTP that are speech here (RFC 3551, section 6): mu-law, GSM full rate and
A-law."""

PCMU, GSM, PCMA = 0, 3, 8
