fn old_name() {}
  old_name();
end