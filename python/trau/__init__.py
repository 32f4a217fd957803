"""GSM full rate speech between base stations and the exchange: the rules, a model of `trau`, recordings, runs, pictures, the live gateway."""
