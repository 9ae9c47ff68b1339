// Stand-in: nothing here syncs on another thread.
