./stc layout folder.sh/a.st --program Main
