"""The live gateway between GSM full rate over RTP and G.711 over RTP (docs/GATEWAY.md)."""
