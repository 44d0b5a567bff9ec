#ifndef SHIM_INIT_H
#define SHIM_INIT_H

#define __init
#define __exit

#endif
