// bcsg 2 contour
// box -6 -1 46 21
union() {
  // own 87 5 3
  difference() {
    intersection() {
      translate([-6,-1,0]) square([52,22]);
      // out 81 -2 3
      translate([-8187,0,0]) square([16384,8192]);
      // out 155 5 4
      multmatrix([[1,-1,0,35],[1,1,0,0],[0,0,1,0],[0,0,0,1]]) translate([-8192,0,0]) square([16384,8192]);
      // out 121 17 3
      translate([-8152,-8187,0]) square([8192,16384]);
      // out 5 5 4
      multmatrix([[1,1,0,0],[-1,1,0,5],[0,0,1,0],[0,0,0,1]]) translate([-8192,0,0]) square([16384,8192]);
    }
    // out -1 17 3
    translate([-8192,-8177,0]) square([8192,16384]);
    // out 3 10 1
    translate([-8197,6,0]) square([16384,8192]);
  }
  // own 33 10 1
  difference() {
    intersection() {
      translate([-6,-1,0]) square([52,22]);
      // out 128 26 3
      translate([-8152,-8187,0]) square([8192,16384]);
      // out 52 13 2
      translate([-8147,8,0]) square([16384,8192]);
    }
    // out 3 10 1
    translate([-8180,-8184,0]) square([8192,16384]);
    // out 52 25 2
    translate([-8180,12,0]) square([16384,8192]);
    // out undecided
    translate([12,10,0]) circle(r=sqrt(9));
    // out 92 28 3
    translate([28,10,0]) circle(r=sqrt(9));
  }
  // own 87 55 3
  difference() {
    intersection() {
      translate([-6,-1,0]) square([52,22]);
      // out 121 43 3
      translate([-8152,-8187,0]) square([8192,16384]);
      // out 3 10 1
      translate([-8147,14,0]) square([16384,8192]);
    }
    // out 155 75 4
    multmatrix([[1,1,0,40],[-1,1,0,15],[0,0,1,0],[0,0,0,1]]) translate([-8192,0,0]) square([16384,8192]);
    // out 81 62 3
    translate([-8157,20,0]) square([16384,8192]);
    // out 5 75 4
    multmatrix([[1,-1,0,5],[1,1,0,20],[0,0,1,0],[0,0,0,1]]) translate([-8192,0,0]) square([16384,8192]);
    // out -1 43 3
    translate([-8192,-8177,0]) square([8192,16384]);
  }
  // own 115 5 3
  difference() {
    intersection() {
      translate([-6,-1,0]) square([52,22]);
      // out 137 -2 3
      translate([35,5,0]) circle(r=sqrt(25));
    }
    // out 92 20 3
    translate([-8197,6,0]) square([16384,8192]);
  }
  // own 115 55 3
  difference() {
    intersection() {
      translate([-6,-1,0]) square([52,22]);
      // out 92 38 3
      translate([-8147,14,0]) square([16384,8192]);
      // out 137 54 3
      translate([35,15,0]) circle(r=sqrt(25));
    }
  }
  // own 5 55 3
  difference() {
    intersection() {
      translate([-6,-1,0]) square([52,22]);
      // out 12 38 3
      translate([-8147,14,0]) square([16384,8192]);
      // out 137 54 3
      translate([5,15,0]) circle(r=sqrt(25));
    }
  }
  // own 5 5 3
  difference() {
    intersection() {
      translate([-6,-1,0]) square([52,22]);
      // out 137 -2 3
      translate([5,5,0]) circle(r=sqrt(25));
    }
    // out 12 20 3
    translate([-8197,6,0]) square([16384,8192]);
  }
}
