"""The package's tests: cd python && python3 -m unittest. The variable ASPAVIEW may name another program than the one built here."""
