"""The second program: SPI-2 by document 01 and the requests of 02 alone, to compare the first one with."""
