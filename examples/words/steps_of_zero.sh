./stc run ../tank.st --program Main --steps 0
