./stc check . --program Main
