/* Refuses nothing: judges.py puts it in the place of a shim that refuses memory or writes, and no test over one may pass then. */
extern int nothing;
