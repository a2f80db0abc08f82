./stc check ../refused/semicolon.st --program Main --quiet
