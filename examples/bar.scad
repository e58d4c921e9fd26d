// bcsg 2 contour
// box -6 5 46 15
union() {
  // own 102 20 3
  difference() {
    intersection() {
      translate([-6,5,0]) square([52,10]);
      // out 102 16 3
      translate([-8197,6,0]) square([16384,8192]);
      // out 137 20 3
      translate([-8147,-8186,0]) square([8192,16384]);
    }
    // out 102 28 3
    translate([-8147,8,0]) square([16384,8192]);
    // out -17 20 3
    translate([-8197,-8178,0]) square([8192,16384]);
  }
  // own 19 28 3
  difference() {
    intersection() {
      translate([-6,5,0]) square([52,10]);
      // out 19 16 3
      translate([-8147,8,0]) square([16384,8192]);
      // out 102 28 3
      translate([-8180,-8184,0]) square([8192,16384]);
    }
    // out 19 44 3
    translate([-8147,14,0]) square([16384,8192]);
    // out -17 28 3
    translate([-8197,-8178,0]) square([8192,16384]);
    // out undecided
    translate([12,10,0]) circle(r=sqrt(4));
  }
  // own 102 38 3
  difference() {
    intersection() {
      translate([-6,5,0]) square([52,10]);
      // out 137 38 3
      translate([-8147,-8186,0]) square([8192,16384]);
      // out 102 28 3
      translate([-8180,12,0]) square([16384,8192]);
    }
    // out 102 44 3
    translate([-8147,14,0]) square([16384,8192]);
    // out -17 38 3
    translate([-8197,-8178,0]) square([8192,16384]);
  }
}
