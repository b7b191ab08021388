"""Tests of papledger. They need the program, which PAPCALC in the environment names."""
