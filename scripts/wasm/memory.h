/* The memory of the module: from the end of its data on, one block after the other. */
#pragma once

/* Gives back all that was allocated. */
void let_go(void);
