// bcsg 2 solid
// box -1 -1 -1 41 31 31
difference() {
  intersection() {
    translate([-1,-1,-1]) cube([42,32,32]);
    translate([-8192,0,-8192]) cube([16384,8192,16384]);
    translate([-8192,-8192,0]) cube([16384,16384,8192]);
    translate([0,-8192,-8162]) cube([8192,16384,16384]);
  }
  translate([-8192,30,-8162]) cube([16384,8192,16384]);
  translate([40,-8192,-8192]) cube([8192,16384,16384]);
  translate([-8186,-8192,30]) cube([16384,16384,8192]);
  intersection() {
    translate([-8152,-8192,6]) cube([16384,16384,8192]);
    translate([6,-8192,-8186]) cube([8192,16384,16384]);
  }
}
