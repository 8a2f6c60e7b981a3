_Bool b;
