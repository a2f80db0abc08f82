./stc run nowhere.st --program Main
